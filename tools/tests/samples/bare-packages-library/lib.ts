export function ff() {}
