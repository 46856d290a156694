// The worker of a page that a server has given: it talks with the server and keeps the mesh that is
// shown, by what changes. While the replies to one script are read, the next may be on its way.
import { Connection } from "./connection.js";
import { answerBy } from "./tasks.js";
import { tasksOver } from "./working.js";

const lost = (fault) => postMessage({ news: { fault } });

answerBy(tasksOver(() => new Connection(lost)));
