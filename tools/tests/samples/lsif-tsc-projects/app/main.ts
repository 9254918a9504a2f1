import { log } from "../lib/log";
log("a");
