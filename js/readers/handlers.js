// The attributes that browsers take for event handlers (HTML, "Event handlers on elements, Document
// objects, and Window objects"; UI Events, Pointer Events, Touch Events, CSS Animations, CSS Transitions,
// Clipboard, Selection).

const all = `
  abort animationcancel animationend animationiteration animationstart auxclick beforecopy beforecut
  beforeinput beforematch beforepaste beforetoggle beforexrselect blur cancel canplay canplaythrough
  change click close command contentvisibilityautostatechange contextlost contextmenu contextrestored
  copy cuechange cut dblclick drag dragend dragenter dragleave dragover dragstart drop durationchange
  emptied ended error focus focusin focusout formdata fullscreenchange fullscreenerror gotpointercapture
  input invalid keydown keypress keyup load loadeddata loadedmetadata loadstart lostpointercapture
  mousedown mouseenter mouseleave mousemove mouseout mouseover mouseup mousewheel paste pause play
  playing pointercancel pointerdown pointerenter pointerleave pointermove pointerout pointerover
  pointerrawupdate pointerup progress ratechange reset resize scroll scrollend scrollsnapchange
  scrollsnapchanging search securitypolicyviolation seeked seeking select selectionchange selectstart
  slotchange stalled submit suspend timeupdate toggle touchcancel touchend touchmove touchstart
  transitioncancel transitionend transitionrun transitionstart volumechange waiting webkitanimationend
  webkitanimationiteration webkitanimationstart webkitfullscreenchange webkitfullscreenerror
  webkittransitionend wheel`;
const window = `
  afterprint beforeprint beforeunload gamepadconnected gamepaddisconnected hashchange languagechange
  message messageerror offline online orientationchange pagehide pagereveal pageshow pageswap popstate
  rejectionhandled storage unhandledrejection unload`;
const animations = 'begin end repeat';

/** @param {string} names */
const set = names => new Set(names.trim().split(/\s+/).map(it => `on${it}`));
const ALL = set(all), WINDOW = set(window), ANIMATIONS = set(animations);

/**
 * Whether an attribute of an element is an event handler.
 * @param {string} name
 * @param {string} tag
 */
export const isHandler = (name, tag) => ALL.has(name)
  || WINDOW.has(name) && (tag === 'body' || tag === 'frameset')
  || ANIMATIONS.has(name) && (tag.startsWith('animate') || tag === 'set');
