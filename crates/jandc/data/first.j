package base {
  class Exp { int eval() { return 0; } }
  class Lit extends Exp { int v; void Lit(int a) { this.v = a; } int eval() { return this.v; } }
  class Add extends Exp { Exp l; Exp r;
    void Add(Exp a, Exp b) { this.l = a; this.r = b; }
    int eval() { return this.l.eval() + this.r.eval(); } }
  class Make { Exp two(int a, int b) { return new Add(new Lit(a), new Lit(b)); } }
}
package shower extends base adapts base {
  class Exp { void show() { print(0); } }
  class Lit { void show() { print(this.v); } }
  class Add { void show() { this.l.show(); this.r.show(); } }
}
package doubler extends base { class Lit { int eval() { return 2 * this.v; } } }
package both extends shower & doubler { }
class Main { void main() { both!.Exp e = new both.Make().two(3, 4); print(e.eval()); e.show(); } }
