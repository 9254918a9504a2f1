aa;
