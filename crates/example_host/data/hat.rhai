let said = "";
try { price("hat"); } catch (why) { said = why; } // the shop throws
said
