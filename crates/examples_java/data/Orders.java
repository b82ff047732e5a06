package shop;

import java.util.List;

@Table(name("orders"))
class Orders {
    enum State { OPEN(code(1)) { int f() { return g(); } }, SHIPPED; }

    List<Line> lines = new ArrayList<Line>(load("x"));

    int total() { return lines.stream().sum(tax()); }
}
