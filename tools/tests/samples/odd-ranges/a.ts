let aa = 1; aa;
