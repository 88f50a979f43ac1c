// One tree, two families: `lambda` evaluates terms, `shown` adapts it and prints them. The same tree is handed from
// one to the other by a view change; nothing is copied.
// `./jandc run examples/lambda_views.j` prints apply, lambda, variable, 0, 5, then 5, then true.
package lambda {
  class Term {
    Term put(int n, Term by) { return this; }
    Term eval() { return this; }
    Term apply(Term a) { return new App(this, a); }
  }
  class Num extends Term {
    int v;
    void Num(int v) { this.v = v; }
  }
  class Var extends Term {
    int n;
    void Var(int n) { this.n = n; }
    Term put(int n, Term by) {
      if (this.n == n) { return by; }
      return this;
    }
  }
  class Lam extends Term {
    Term body;
    void Lam(Term body) { this.body = body; }
    Term put(int n, Term by) { return new Lam(this.body.put(n + 1, by)); }
    Term apply(Term a) { return this.body.put(0, a).eval(); }
  }
  class App extends Term {
    Term f;
    Term a;
    void App(Term f, Term a) {
      this.f = f;
      this.a = a;
    }
    Term put(int n, Term by) { return new App(this.f.put(n, by), this.a.put(n, by)); }
    Term eval() { return this.f.eval().apply(this.a.eval()); }
  }
}

package shown extends lambda adapts lambda {
  class Term { void show() { } }
  class Num { void show() { print(this.v); } }
  class Var {
    void show() {
      print("variable");
      print(this.n);
    }
  }
  class Lam {
    void show() {
      print("lambda");
      this.body.show();
    }
  }
  class App {
    void show() {
      print("apply");
      this.f.show();
      this.a.show();
    }
  }
}

class Main {
  void main() {
    lambda!.Term t = new lambda.App(new lambda.Lam(new lambda.Var(0)), new lambda.Num(5));
    shown!.Term s = (view shown!.Term) t;
    s.show();
    shown!.Term r = (view shown!.Term) t.eval();
    r.show();
    print(s == t);
  }
}
