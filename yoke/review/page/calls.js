// Calls of the server. The token came after the # of the address; it goes in a header, and never into an address again.

const token = location.hash.slice(1) || sessionStorage.getItem('token') || '';
if (location.hash.length > 1) {
  sessionStorage.setItem('token', token);
  history.replaceState(null, '', '/');
}

const TEXTS = {
  403: 'The secret in the address is wrong: open the address that yoke review printed.',
  413: 'That is too much at once: decide on fewer edits.',
};

export async function call(path, body) {
  let answer;
  try {
    answer = await fetch(path, {
      method: body === undefined ? 'GET' : 'POST', cache: 'no-store', credentials: 'omit',
      headers: { 'X-Yoke-Token': token, 'Content-Type': 'application/json' },
      body: body === undefined ? undefined : JSON.stringify(body),
    });
  } catch (fault) {
    throw new Error('yoke review doesn\'t answer: start it again. The decisions that the page shows as counted are kept.');
  }
  if (answer.ok) return answer.json();
  let told = {};
  try { told = await answer.json(); } catch (fault) { /* an answer without JSON */ }
  const text = told.problem || TEXTS[answer.status] || 'yoke review answers ' + answer.status + '.';
  throw Object.assign(new Error(text), { key: told.key || '' });
}
