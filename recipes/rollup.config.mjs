// Rollup with sheets: `import css from './main.scss'` gives the CSS as a text, and puts it as `css/main.css` beside the scripts. A fault is an
// error with its place and its lines, and `rollup -c -w` builds again where any file changes that a sheet loads, or comes in its place.
// In Vite the same plugin stands in `plugins` of vite.config.js, and Vite puts the CSS into the page.
import sassw from 'sassw/rollup';

export default {
  input: 'src/main.js',
  output: { dir: 'public', assetFileNames: 'css/[name][extname]' },
  plugins: [sassw({ loadPaths: ['node_modules'] })],
};
