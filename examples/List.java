class Node { int v; /*@ nullable @*/ Node next; }
class List {
  /*@ nullable @*/ Node head;
  /*@ invariant (\forall Node n; \reach(head, Node, next).has(n);
    @   !\reach(n.next, Node, next).has(n)
    @   && (n.next != null ==> n.v <= n.next.v)); @*/
  /*@ ensures \reach(head, Node, next).int_size()
    @   == \old(\reach(head, Node, next).int_size()) + 1; @*/
  void insert(int k) {
    Node x = new Node();
    x.v = k;
    if (head == null || k <= head.v) { x.next = head; head = x; return; }
    Node p = head;
    while (p.next != null && p.next.v < k) { p = p.next; }
    x.next = p.next;
    p.next = x;
  }
}
