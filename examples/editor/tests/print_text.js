/* What the page shows as print text, to be held against that of a replica: run in the page, it answers the text by its last argument. */
const answer = arguments[arguments.length - 1];
const { graph } = window.grove;

import("/nodes.js").then(({ childrenOf, headNode, sortOf, typeOf, wantedOf, markOf }) => {
  const lines = [];
  for (const kind of ["none", "multi", "cycle"]) {
    const heads = graph.sortedHeads(kind);
    lines.push(`${kind} ${heads.length}`);
    heads.forEach((head) => printTree(headNode(head)));
  }
  answer(lines.map((line) => `${line}\n`).join(""));

  function printTree(head) {
    const open = [[head, 0]];
    while (open.length) {
      const [node, depth] = open.pop();
      lines.push([depth, node.position ?? "-", node.edge?.name ?? "-", node.vertex?.name ?? "-", what(node), mode(node),
        typeOf(node) ?? "-", markOf(node) ?? "-"].join(" "));
      childrenOf(node).reverse().forEach((child) => open.push([child, depth + 1]));
    }
  }

  function what(node) {
    if (node.kind === "hole") return "hole";
    if (node.kind === "conflict") return `conflict:${node.holder.children.get(node.position).length}`;
    return (node.kind === "reference" ? `${node.vertex.kind}:` : "") + node.vertex.constructorText;
  }

  function mode(node) {
    const sort = sortOf(node);
    if (sort !== "exp") return sort;
    return wantedOf(node) === null ? "syn" : `ana:${wantedOf(node)}`;
  }
});
