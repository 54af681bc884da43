import * as bivdrazo from './index.js';
export * from './index.js';
export default bivdrazo;
