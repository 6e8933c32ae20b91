shape [8]S;
int:S p;
main() { with (S) { for (int i = 0; i < 3; i++) p += i; } }
