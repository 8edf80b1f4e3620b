// Builds modules from recipes.
import { byId } from './elements.js';
import { reader } from './engine.js';

/** Selects a line of the recipe. */
function selectLine(line) {
  const field = byId('recipe');
  const lines = field.value.split('\n');
  const start = lines.slice(0, line - 1).join('\n').length + (line > 1 ? 1 : 0);
  field.focus();
  field.setSelectionRange(start, start + (lines[line - 1] ?? '').length);
}

function showRecipeError(error) {
  byId('recipe-error').textContent = error?.message ?? '';
  byId('recipe').setAttribute('aria-invalid', error !== null);
  if (error?.line) selectLine(error.line);
}

function showRecipe() {
  const button = byId('write');
  const isShown = button.getAttribute('aria-expanded') === 'true';
  button.setAttribute('aria-expanded', !isShown);
  byId('recipe-panel').hidden = isShown;
  if (!isShown) byId('recipe').focus();
}

/** Calls `open` with the bytes of each module that is built. */
export function listenToRecipe(open) {
  const build = async (event) => {
    event.preventDefault();
    try {
      const bytes = await reader.call('build', byId('recipe').value);
      showRecipeError(null);
      await open('recipe.wasm', bytes, true);
    } catch (error) {
      showRecipeError(error);
    }
  };
  byId('write').addEventListener('click', showRecipe);
  byId('recipe-panel').addEventListener('submit', build);
  byId('recipe').addEventListener('keydown', (event) => {
    if (event.key === 'Enter' && (event.ctrlKey || event.metaKey)) build(event);
  });
}
