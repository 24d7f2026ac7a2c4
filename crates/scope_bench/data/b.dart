class C {}
f() {}
get g => 1;
