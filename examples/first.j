// One class: a field, a constructor, two methods. `./jandc run examples/first.j` prints 6.
class Main {
  int count;
  void Main() { this.count = 3; }
  void main() { print(this.twice(this.count)); }
  int twice(int n) { return n + n; }
}
