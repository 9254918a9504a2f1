class A { } // new A()
