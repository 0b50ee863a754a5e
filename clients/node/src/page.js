// The script of a page whose CSS `sassw-serve` gives: it puts new CSS in the place of the old without a reload, and shows a fault over the
// page until it is mended. It is no module, so that it knows from where it was loaded.
(() => {
  const { origin } = new URL(/** @type {HTMLScriptElement} */ (document.currentScript).src);
  /** Of each address of CSS, the version that the page has. @type {Map<string, string>} */
  const versions = new Map();
  /** Of each address of CSS whose sheets have a fault, its explanation. @type {Map<string, string>} */
  const faults = new Map();
  /** Of each link that was put for new CSS, the one before it, which stays until the new CSS is there. @type {Map<Element, HTMLLinkElement>} */
  const earlier = new Map();

  /** @param {string} href @returns {string | null} what the server calls the CSS at this place; null where it stands elsewhere */
  function addressOf(href) {
    if (!href.startsWith(`${origin}/`)) return null;
    try {
      return decodeURIComponent(new URL(href).pathname);
    } catch {
      return null;
    }
  }

  /** @param {string} address @returns {HTMLLinkElement[]} the links to this CSS that none comes after */
  function linksTo(address) {
    const links = /** @type {HTMLLinkElement[]} */ (Array.from(document.querySelectorAll('link[rel~="stylesheet"]')));
    const left = new Set(earlier.values());
    return links.filter((link) => addressOf(link.href) === address && !left.has(link));
  }

  /** @param {HTMLLinkElement} link @param {string} version */
  function putAnew(link, version) {
    const next = /** @type {HTMLLinkElement} */ (link.cloneNode());
    const url = new URL(link.href);
    url.searchParams.set('sassw', version);
    next.href = url.href;
    earlier.set(next, link);
    next.addEventListener('load', () => {
      for (let at = earlier.get(next), of = /** @type {Element} */ (next); at; of = at, at = earlier.get(at)) {
        earlier.delete(of);
        at.remove();
      }
      document.dispatchEvent(new CustomEvent('sassw', { detail: { address: addressOf(next.href), version } }));
    });
    next.addEventListener('error', () => {
      earlier.delete(next);
      next.remove();
    });
    link.after(next);
  }

  const STYLE = `
    :host { all: initial; position: fixed; inset: auto 0 0 0; z-index: 2147483647; }
    section { max-height: 60vh; overflow: auto; padding: 12px 16px; border-top: 3px solid #e5534b; background: #1c2128; color: #cdd9e5;
      font: 13px/1.5 ui-monospace, Menlo, Consolas, monospace; }
    pre { margin: 0 0 12px; font: inherit; white-space: pre-wrap; tab-size: 4; }
    button { float: right; padding: 2px 8px; border: 1px solid #768390; border-radius: 4px; background: none; color: inherit; font: inherit; cursor: pointer; }`;

  function showFaults() {
    document.querySelector('sassw-fault')?.remove();
    if (faults.size === 0) return;
    const host = document.createElement('sassw-fault');
    const root = host.attachShadow({ mode: 'open' });
    const style = root.appendChild(document.createElement('style'));
    style.textContent = STYLE;
    const section = root.appendChild(document.createElement('section'));
    section.setAttribute('role', 'alert');
    const button = section.appendChild(document.createElement('button'));
    button.textContent = 'close';
    button.addEventListener('click', () => host.remove());
    // What is shown is text of files: it is never read as HTML. One fault may stand in several entries and is shown once.
    for (const text of new Set(faults.values())) {
      section.appendChild(document.createElement('pre')).textContent = text;
    }
    document.documentElement.appendChild(host);
  }

  /** @param {{ address: string, version: string | null, fault: string | null }} sheet */
  function take({ address, version, fault }) {
    if (version !== null && versions.get(address) !== version) {
      versions.set(address, version);
      linksTo(address).forEach((link) => putAnew(link, version));
    }
    if ((faults.get(address) ?? null) === fault) return;
    if (fault === null) faults.delete(address);
    else faults.set(address, fault);
    showFaults();
  }

  /** @type {EventSource | null} */
  let events = null;

  // Browsers open few connections to one server, so a page that nobody sees keeps none. It is told all when it is seen again.
  function connect() {
    events?.close();
    events = null;
    if (document.visibilityState === 'hidden') return;
    events = new EventSource(`${origin}/sassw-events`);
    events.addEventListener('sheet', (event) => take(JSON.parse(event.data)));
  }

  document.addEventListener('visibilitychange', connect);
  connect();
})();
