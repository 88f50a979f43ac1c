// Classes nest in packages, and a class extends its neighbours.
// `./jandc run examples/nested.j` prints 2.
package zoo {
  class Animal {
    int legs() { return 4; }
    void tell() { print(this.legs()); }
  }
  class Bird extends Animal { int legs() { return 2; } }
}
class Main {
  void main() {
    zoo.Animal a = new zoo.Bird();
    a.tell();
  }
}
