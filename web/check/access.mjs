// Runs in the page: what breaks the rules of access that can be seen in a document, by rule.
export function accessFaults() {
  const all = (selector) => [...document.querySelectorAll(selector)];
  const seen = (it) => it.getClientRects().length > 0;
  const told = (list) => list.map((it) => it.outerHTML.slice(0, 80));
  const named = (it) => it.labels?.length || it.getAttribute("aria-label") || it.getAttribute("aria-labelledby");
  const ids = all("[id]").map((it) => it.id);
  const levels = all("h1, h2, h3, h4").filter(seen).map((it) => Number(it.tagName[1]));
  return {
    "fields have labels": told(all("input, textarea, select").filter((it) => !named(it))),
    "buttons and links have names": told(all("button, a").filter((it) => !it.textContent.trim() && !named(it))),
    "pictures have names": told(all("svg, img").filter((it) => !it.getAttribute("aria-label") && !it.alt)),
    "ids stand once": ids.filter((it, at) => ids.indexOf(it) !== at),
    "names by id lead to something": all("[aria-labelledby]").map((it) => it.getAttribute("aria-labelledby"))
      .filter((it) => !document.getElementById(it)),
    "one heading of level 1, and no level is left out":
      levels.filter((it, at) => (at === 0 ? it !== 1 : it === 1 || it > levels[at - 1] + 1)).map(String),
    "the order of focus is the page's": told(all("[tabindex]").filter((it) => it.tabIndex > 0)),
    "what scrolls can have the focus": told(all("pre").filter((it) => seen(it) && it.scrollWidth > it.clientWidth
      && it.tabIndex < 0 && !it.hasAttribute("aria-hidden"))),
    "the page has its language, its title and one main part": [
      document.documentElement.lang === "en", document.title !== "", all("main").length === 1,
    ].filter((holds) => !holds).map(String),
    "what is pressed is 24 pixels high": told(all("button, select, input:not([type=range])")
      .filter((it) => seen(it) && it.getBoundingClientRect().height < 24)),
    "nothing moves by itself": told(all("body *").filter((it) => {
      const { animationName, transitionDuration } = getComputedStyle(it);
      return animationName !== "none" || transitionDuration !== "0s";
    })),
    "no script and no style stands in the page": told(all("script:not([src]), style, [style], [onclick]")),
  };
}
