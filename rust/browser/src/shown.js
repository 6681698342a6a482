(() => {
  const byId = (id) => document.getElementById(id);
  const all = (from, what) => [...from.querySelectorAll(what)];
  const text = (element) => (element ? element.textContent : "");
  const isSeen = (element) => element.getClientRects().length > 0 && getComputedStyle(element).visibility === "visible";
  const ledger = (of) => [text(of.querySelector("b")), text(of.querySelector(".state")), ...all(of, ".entries .chip").map(text)].join(" ");
  const rows = all(byId("lanes"), "tr").slice(1);
  const cells = all(byId("lanes"), "td").map((cell) => ({ cell, client: rows.indexOf(cell.parentElement), step: cell.dataset.step }));
  const marks = cells.flatMap(({ cell, client, step }) => all(cell, ".mark:not(.none)").map((mark) => `${step} ${client} ${mark.classList.contains("refused") ? "refused " : ""}${mark.firstChild.data}${text(mark.querySelector(".spoken"))}`));
  const words = cells.flatMap(({ cell, client, step }) => all(cell, ".band span").map((band) => `${step} ${client} ${text(band)}`));
  const current = all(byId("steps"), "[aria-current]");
  const ledgers = all(byId("live"), ".ledger");
  return [
    text(byId("line")),
    text(byId("reply")),
    text(byId("text")),
    rows.findIndex((row) => row.querySelector(".named")),
    rows.map((row) => text(row.querySelector(".stands"))).join("\n"),
    all(byId("chain"), ".ledger").map(ledger).join("\n"),
    all(byId("unlisted"), ".ledger").map(ledger).join("\n"),
    all(byId("live"), ".blocked .chip").map(text).join("\n"),
    byId("slider").value,
    text(byId("place")),
    current.map((link) => link.hash.slice(1)).join(" "),
    all(byId("lanes"), "th[data-step]").map((head) => head.dataset.step).join(" "),
    marks.join("\n"),
    words.join("\n"),
    isSeen(byId("results")) ? ["chain-line", "total", "rounded"].map((id) => text(byId(id))).join("\n") : "",
    byId("step").className,
    text(byId("told")),
    isSeen(byId("line").parentElement) && ledgers.every(isSeen) ? "seen" : "not seen",
    text(byId("when")),
    all(byId("lanes"), "th[data-step]").map(text).join(" "),
  ].join("\u001f");
})()
