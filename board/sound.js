// Signs for a page behind other windows: two tones, and a notification.

// seconds and hertz
const TONES = [[0, 660], [0.3, 880]], LASTS = 0.22, LOUD = 0.3;
/** @type {AudioContext|undefined} */ let audio;

// No page sounds before somebody clicked there or pressed a key.
export function soundWhere(isWanted = () => true) {
  const wake = () => {
    if (isWanted()) audio ??= new AudioContext();
    audio?.resume();
  };
  for (const kind of ['pointerdown', 'keydown']) addEventListener(kind, wake, {passive: true});
  if (navigator.userActivation?.hasBeenActive) wake();
}

export const isHeard = () => audio?.state === 'running';

export function tone() {
  const context = audio ??= new AudioContext();
  for (const [begins, hertz] of TONES) {
    const sound = context.createOscillator(), louder = context.createGain(), from = context.currentTime + begins;
    sound.connect(louder).connect(context.destination);
    sound.frequency.value = hertz;
    for (const [loud, at] of [[0, 0], [LOUD, 0.02], [LOUD, LASTS - 0.04], [0, LASTS]]) louder.gain.linearRampToValueAtTime(loud, from + at);
    sound.start(from);
    sound.stop(from + LASTS);
  }
}

/** @param {NotificationOptions} how */
export function notify(title = '', how) {
  try { if (Notification.permission === 'granted') return new Notification(title, how); } catch { /* a browser that lets no page do so */ }
}
