"""TypeScript and JavaScript, by one pass of the compiler's checker."""
