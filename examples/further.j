// An heir of a package has all its classes and may bind them further: the Bird of `loud` has the Animal of `loud`
// above it. `./jandc run examples/further.j` prints hear: and 2.
package zoo {
  class Animal {
    int legs() { return 4; }
    void tell() { print(this.legs()); }
  }
  class Bird extends Animal { int legs() { return 2; } }
}
package loud extends zoo {
  class Animal {
    void tell() {
      print("hear:");
      print(this.legs());
    }
  }
}
class Main {
  void main() { new loud.Bird().tell(); }
}
