// One object, two families: `signs` shares its classes with `zoo`, so an animal of the one can be viewed in the other.
// `./jandc run examples/shared.j` prints 7 and true.
package zoo {
  class Animal {
    int age;
    void Animal(int a) { this.age = a; }
  }
}
package signs extends zoo adapts zoo {
  class Animal { void show() { print(this.age); } }
}
class Main {
  void main() {
    zoo!.Animal a = new zoo.Animal(7);
    signs!.Animal s = (view signs!.Animal) a;
    s.show();
    print(s == a);
  }
}
