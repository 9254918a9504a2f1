export function log(s: string) {}
log("");
