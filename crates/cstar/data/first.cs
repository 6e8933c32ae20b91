shape [8]S;
int:S v;
main() { with (S) { v = 3; v = v + v; printf("%d\n", += v); } }