// Main waits for a message that nobody sends: it prints nothing, and the status is 4.
class Buffer {
  public string Get() & public async Put(string s) { return s; }
}
class Program {
  static void Main() {
    Buffer b = new Buffer();
    Console.WriteLine(b.Get());
  }
}
