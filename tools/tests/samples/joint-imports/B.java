class B { = new A(); } // A
