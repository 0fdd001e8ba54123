<?php
header("Content-Security-Policy: default-src 'self'; img-src https:");
