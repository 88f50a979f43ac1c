// A method over whole families: what it makes is of the family of the animal that it is given.
// `./jandc run examples/over.j` prints hear: and 2.
package zoo {
  class Animal {
    int legs() { return 4; }
    void tell() { print(this.legs()); }
  }
  class Bird extends Animal { int legs() { return 2; } }
}
package loud extends zoo {
  class Animal {
    void tell() {
      print("hear:");
      print(this.legs());
    }
  }
}
class Keeper {
  zoo[a.class].Animal friend(final zoo.Animal a) { return new zoo[a.class].Bird(); }
}
class Main {
  void main() {
    final loud.Animal a = new loud.Animal();
    loud.Animal b = new Keeper().friend(a);
    b.tell();
  }
}
