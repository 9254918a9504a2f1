pub fn g() {}
// end
