import { ff } from "lib"; ff;
