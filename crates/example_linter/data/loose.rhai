let done = true;
if done { break; }
