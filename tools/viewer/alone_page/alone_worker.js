// The worker of the page that needs no server: the engine is in it.
import { answerBy } from "../page/tasks.js";
import { tasksOver } from "../page/working.js";
import { BuiltIn } from "./built_in.js";

const told = (news) => postMessage({ news });

answerBy(tasksOver((asked) => new BuiltIn(asked, told)));
