void F() { }
void T() { tapa::task().invoke(F); }
@
