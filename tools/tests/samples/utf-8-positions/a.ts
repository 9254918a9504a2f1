let é = 1; let aa = é; aa;
