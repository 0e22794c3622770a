@t = private constant ptr @f ; refused
