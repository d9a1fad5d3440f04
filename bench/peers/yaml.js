// node's yaml: its Lexer, its Parser (tokens with their places in a tree), and parse. What a driver is given and prints is told
// in turns.h.
const fs = require("fs");
const yaml = require("yaml");

const text = fs.readFileSync(process.argv[2], "utf8");

function count(items) {
  let made = 0;
  for (const item of items) made++;
  return made;
}

const ways = {
  tokens: () => count(new yaml.Lexer().lex(text)),
  tree: () => [...new yaml.Parser().parse(text)][0].value.items.length,
  loading: () => Object.keys(yaml.parse(text)).length,
};

require("readline").createInterface({ input: process.stdin }).on("line", (line) => {
  const start = process.cpuUsage();
  const made = ways[line]();
  const used = process.cpuUsage(start);
  console.log(`${made} ${(used.user + used.system) * 1000}`);
});
