// Begins the page, after all other scripts.
"use strict";
dsmon.page = new dsmon.Page();
dsmon.listen(dsmon.page);
dsmon.page.begin();
