let aa = 1; let o = { aa };
o.aa;
