// The semicolon behind the call is missing, so the next brace fits nowhere.
class Program {
  static void Main() {
    Console.WriteLine("hi")
  }
}
