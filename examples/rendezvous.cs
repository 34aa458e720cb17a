// Two callers meet: each gives a value and gets the other's. A header has one synchronous method, so the second caller comes
// by a message with a place for its answer.
class Place {
  public async Put(string s) { held(s); }
  public string Get() & async held(string s) { return s; }
}

class Meeting {
  public string Swap(string mine) & async offer(string other, Place answer) {
    answer.Put(mine);
    return other;
  }
  public string Offer(string mine) {
    Place answer = new Place();
    offer(mine, answer);
    return answer.Get();
  }
}

class Other {
  public async Come(Meeting m, Place said) { said.Put("tea got " + m.Offer("tea")); }
}

class Program {
  static void Main() {
    Meeting m = new Meeting();
    Place said = new Place();
    Other o = new Other();
    o.Come(m, said);
    Console.WriteLine("milk got " + m.Swap("milk"));
    Console.WriteLine(said.Get());
  }
}
