// Sums, and how they wrap. `./jandc run examples/sums.j` prints 7, -3 and -9223372036854775808.
class Main {
  void main() {
    print(1 + 2 * 3);
    print(2 - 5);
    print(9223372036854775807 + 1);
  }
}
