// The lambda calculus as a family of classes, extended by sums in one package and by pairs in another, and composed
// into one language with both. Variables are numbers that count the binders between: 0 is bound by the innermost one.
// `./jandc run examples/lambda.j` prints the term (lambda x. match x with left y -> first y, right y -> y)
// (left (pair 3 4)), a node a line, and then its value, 3.
package lambda {
  class Term {
    // this term with the closed term `by` for the variable n
    Term put(int n, Term by) { return this; }
    Term eval() { return this; }
    Term apply(Term a) { return new App(this, a); }
    void show() { }
  }
  class Num extends Term {
    int v;
    void Num(int v) { this.v = v; }
    void show() { print(this.v); }
  }
  class Var extends Term {
    int n;
    void Var(int n) { this.n = n; }
    Term put(int n, Term by) {
      if (this.n == n) { return by; }
      return this;
    }
    void show() {
      print("variable");
      print(this.n);
    }
  }
  class Lam extends Term {
    Term body;
    void Lam(Term body) { this.body = body; }
    Term put(int n, Term by) { return new Lam(this.body.put(n + 1, by)); }
    Term apply(Term a) { return this.body.put(0, a).eval(); }
    void show() {
      print("lambda");
      this.body.show();
    }
  }
  class App extends Term {
    Term f;
    Term a;
    void App(Term f, Term a) {
      this.f = f;
      this.a = a;
    }
    Term put(int n, Term by) { return new App(this.f.put(n, by), this.a.put(n, by)); }
    Term eval() { return this.f.eval().apply(this.a.eval()); }
    void show() {
      print("apply");
      this.f.show();
      this.a.show();
    }
  }
}

package sums extends lambda {
  class Term {
    Term choose(Term left, Term right) { return new Match(this, left, right); }
  }
  class Left extends Term {
    Term of;
    void Left(Term of) { this.of = of; }
    Term put(int n, Term by) { return new Left(this.of.put(n, by)); }
    Term eval() { return new Left(this.of.eval()); }
    Term choose(Term left, Term right) { return left.put(0, this.of).eval(); }
    void show() {
      print("left");
      this.of.show();
    }
  }
  class Right extends Term {
    Term of;
    void Right(Term of) { this.of = of; }
    Term put(int n, Term by) { return new Right(this.of.put(n, by)); }
    Term eval() { return new Right(this.of.eval()); }
    Term choose(Term left, Term right) { return right.put(0, this.of).eval(); }
    void show() {
      print("right");
      this.of.show();
    }
  }
  class Match extends Term {
    Term on;
    Term left;
    Term right;
    void Match(Term on, Term left, Term right) {
      this.on = on;
      this.left = left;
      this.right = right;
    }
    Term put(int n, Term by) {
      return new Match(this.on.put(n, by), this.left.put(n + 1, by), this.right.put(n + 1, by));
    }
    Term eval() { return this.on.eval().choose(this.left, this.right); }
    void show() {
      print("match");
      this.on.show();
      this.left.show();
      this.right.show();
    }
  }
}

package pairs extends lambda {
  class Term {
    Term first() { return new First(this); }
    Term second() { return new Second(this); }
  }
  class Pair extends Term {
    Term a;
    Term b;
    void Pair(Term a, Term b) {
      this.a = a;
      this.b = b;
    }
    Term put(int n, Term by) { return new Pair(this.a.put(n, by), this.b.put(n, by)); }
    Term eval() { return new Pair(this.a.eval(), this.b.eval()); }
    Term first() { return this.a; }
    Term second() { return this.b; }
    void show() {
      print("pair");
      this.a.show();
      this.b.show();
    }
  }
  class First extends Term {
    Term of;
    void First(Term of) { this.of = of; }
    Term put(int n, Term by) { return new First(this.of.put(n, by)); }
    Term eval() { return this.of.eval().first(); }
    void show() {
      print("first");
      this.of.show();
    }
  }
  class Second extends Term {
    Term of;
    void Second(Term of) { this.of = of; }
    Term put(int n, Term by) { return new Second(this.of.put(n, by)); }
    Term eval() { return this.of.eval().second(); }
    void show() {
      print("second");
      this.of.show();
    }
  }
}

package both extends sums & pairs { }

class Main {
  void main() {
    both!.Term body = new both.Match(new both.Var(0), new both.First(new both.Var(0)), new both.Var(0));
    both!.Term pair = new both.Pair(new both.Num(3), new both.Num(4));
    both!.Term t = new both.App(new both.Lam(body), new both.Left(pair));
    t.show();
    t.eval().show();
  }
}
