mod b;
fn f() { b::g(); } // text
