// A program that does nothing. `./jandc run examples/empty.j` prints nothing.
class Main {
  void main() {
  }
}
