// The multiples of 7. `./jandc run examples/table.j` prints them, from 7 to 70.
class Main {
  void main() {
    print(7 * 1);
    print(7 * 2);
    print(7 * 3);
    print(7 * 4);
    print(7 * 5);
    print(7 * 6);
    print(7 * 7);
    print(7 * 8);
    print(7 * 9);
    print(7 * 10);
  }
}
