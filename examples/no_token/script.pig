-- At `@` no token begins; its place is told in bytes from the start.
x = FILTER nope BY @;
