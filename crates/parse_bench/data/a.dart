a + b * f(1, [2, 3])[c].d;
x is A ? 1 : 2; // eight
