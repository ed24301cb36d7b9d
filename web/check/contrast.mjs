// Runs in the page: the texts whose contrast with what is behind them is below 4.5 to 1.
export function contrastFaults() {
  const parse = (colour) => colour.match(/[\d.]+/g).map(Number);
  const channel = (value) => (value / 255 <= 0.04045 ? value / 255 / 12.92 : ((value / 255 + 0.055) / 1.055) ** 2.4);
  const light = ([red, green, blue]) => 0.2126 * channel(red) + 0.7152 * channel(green) + 0.0722 * channel(blue);
  const behind = (element) => {
    for (let it = element; it; it = it.parentElement) {
      const colour = parse(getComputedStyle(it).backgroundColor);
      if (colour.length === 3 || colour[3] === 1) return colour;
    }
    return matchMedia("(prefers-color-scheme: dark)").matches ? [0, 0, 0] : [255, 255, 255];
  };
  const isText = (node) => node.nodeType === Node.TEXT_NODE && node.data.trim();
  const isSeen = (it) => it.getClientRects().length && !it.closest("style, title, script, :disabled");
  const seen = [...document.querySelectorAll("body *")].filter((it) => isSeen(it) && [...it.childNodes].some(isText));
  const ratio = (element) => {
    const style = getComputedStyle(element);
    const front = light(parse(element.closest("svg") ? style.fill : style.color));
    const back = light(behind(element));
    return (Math.max(front, back) + 0.05) / (Math.min(front, back) + 0.05);
  };
  const faint = seen.filter((it) => ratio(it) < 4.5);
  return faint.map((it) => `${it.tagName} ${it.textContent.slice(0, 30)} ${ratio(it).toFixed(1)}`);
}
