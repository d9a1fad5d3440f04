// js-yaml: load. It has no scanner and no parser of its own. What a driver is given and prints is told in turns.h.
const fs = require("fs");
const yaml = require("js-yaml");

const text = fs.readFileSync(process.argv[2], "utf8");
const ways = { loading: () => Object.keys(yaml.load(text)).length };

require("readline").createInterface({ input: process.stdin }).on("line", (line) => {
  const start = process.cpuUsage();
  const made = ways[line]();
  const used = process.cpuUsage(start);
  console.log(`${made} ${(used.user + used.system) * 1000}`);
});
