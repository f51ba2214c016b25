class B {
  //@ ensures \result == a;
  static boolean id(boolean a) { return a; }
}
