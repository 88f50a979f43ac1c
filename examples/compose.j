// Two heirs of one package compose: what each of them changed is changed in both.
// `./jandc run examples/compose.j` prints hear: and 0.
package zoo {
  class Animal {
    int legs() { return 4; }
    void tell() { print(this.legs()); }
  }
  class Bird extends Animal { int legs() { return 2; } }
}
package loud extends zoo {
  class Animal {
    void tell() {
      print("hear:");
      print(this.legs());
    }
  }
}
package flying extends zoo {
  class Bird { int legs() { return 0; } }
}
package both extends loud & flying { }
class Main {
  void main() { new both.Bird().tell(); }
}
