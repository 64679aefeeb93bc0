cout << "b\r" << endl;
