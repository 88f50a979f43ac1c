// A view may have fields that the object got no value for: the mask says so until one is stored.
// `./jandc run examples/masks.j` prints 7 and 12.
package zoo {
  class Animal {
    int age;
    void Animal(int a) { this.age = a; }
  }
}
package signs extends zoo adapts zoo {
  class Animal {
    int number;
    void show() {
      print(this.age);
      print(this.number);
    }
  }
}
class Main {
  void main() {
    final signs!.Animal\number s = (view signs!.Animal\number) new zoo.Animal(7);
    s.number = 12;
    s.show();
  }
}
